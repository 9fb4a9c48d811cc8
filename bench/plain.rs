// What `gomod list` is measured against: the same work as a lean Rust program does it, with a number for each module in
// one hash map of the standard library and nothing proved. It ends at the first fault, and tests names in part.
//
//     rustc --edition 2021 -O bench/plain.rs && ./plain GO.MOD PROXY
//
// It needs a Rust compiler, and prints the build list as `gomod list` does. `./plain GO.MOD PROXY --names` prints the
// files that it opens instead, in that order; `./plain --read NAMES` opens, reads and closes the files of such a list,
// and does nothing else. bench/tables.sh builds and runs it.

use std::cmp::Ordering;
use std::collections::hash_map::Entry;
use std::collections::{HashMap, HashSet, VecDeque};
use std::fs::File;
use std::io::Read;
use std::path::Path;
use std::rc::Rc;
use std::{env, process, str};

fn fail(what: &str) -> ! {
    eprintln!("plain: {what}");
    process::exit(1)
}

fn is_path(text: &str) -> bool {
    text.split('/').all(|element| {
        !element.is_empty()
            && !element.starts_with('.')
            && !element.ends_with('.')
            && element.bytes().all(|b| b.is_ascii_alphanumeric() || b"-._~".contains(&b))
    })
}

// The three numbers of a version, and its pre-release.
#[derive(PartialEq, Eq)]
struct Version<'a> {
    core: (u64, u64, u64),
    pre: &'a str,
}

impl<'a> Version<'a> {
    fn read(text: &'a str) -> Option<Self> {
        let text = text.strip_prefix('v')?.split('+').next()?;
        let (core, pre) = text.split_once('-').unwrap_or((text, ""));
        let mut numbers = core.split('.').map(|number| number.parse().ok());
        let core = (numbers.next()??, numbers.next()??, numbers.next()??);
        numbers.next().is_none().then_some(Version { core, pre })
    }

    fn order(&self, other: &Self) -> Ordering {
        // a release is greater than its pre-releases, whose numbers are less than words
        let part = |text: &'a str| text.parse::<u64>().map_or((1, 0, text), |number| (0, number, ""));
        let pre = |it: &Self| it.pre.split('.').map(part).collect::<Vec<_>>();
        let by_core = self.core.cmp(&other.core);
        by_core.then(self.pre.is_empty().cmp(&other.pre.is_empty())).then_with(|| pre(self).cmp(&pre(other)))
    }
}

// A path and a version with a space between them, as a line of a go.mod has them in its canonical form.
struct Module {
    text: Rc<str>,
    space: usize,
}

impl Module {
    fn path(&self) -> &str {
        &self.text[..self.space]
    }

    fn version(&self) -> &str {
        &self.text[self.space + 1..]
    }
}

// Each module that was named, with its number.
#[derive(Default)]
struct Names {
    numbers: HashMap<Rc<str>, usize>,
    modules: Vec<Module>,
    key: String,
}

impl Names {
    fn number(&mut self, path: &str, version: &str) -> usize {
        self.key.clear();
        self.key.push_str(path);
        self.key.push(' ');
        self.key.push_str(version);
        if let Some(number) = self.numbers.get(self.key.as_str()) {
            return *number;
        }
        if !is_path(path) || Version::read(version).is_none() {
            fail(&self.key);
        }
        let text: Rc<str> = self.key.as_str().into();
        self.modules.push(Module { text: text.clone(), space: path.len() });
        self.numbers.insert(text, self.modules.len() - 1);
        self.modules.len() - 1
    }
}

// What only the main file says of others.
#[derive(Default)]
struct Choices {
    excluded: HashSet<usize>,
    // by a path or a path and a version: the folder, or a path and a version
    replaced: HashMap<String, String>,
}

impl Choices {
    fn replacement(&self, module: &Module) -> Option<&str> {
        if self.replaced.is_empty() {
            return None;
        }
        self.replaced.get(&*module.text).or_else(|| self.replaced.get(module.path())).map(String::as_str)
    }
}

struct ModFile<'a> {
    declared: &'a str,
    go: (u32, u32),
    requirements: Vec<usize>,
}

impl<'a> ModFile<'a> {
    // The choices are given with the main file alone: what other files say beside their requirements is passed over.
    fn add(&mut self, names: &mut Names, choices: Option<&mut Choices>, verb: &str, words: &[&'a str]) {
        match (verb, words, choices) {
            ("module", [path, "", ..], _) => self.declared = path,
            ("go", [version, "", ..], _) => {
                // as 1.21rc1
                let digits = |text: &'a str| text.split(|c: char| !c.is_ascii_digit()).next()?.parse().ok();
                let mut numbers = version.split('.').map(|text| digits(text).unwrap_or(0));
                self.go = (numbers.next().unwrap_or(0), numbers.next().unwrap_or(0));
            }
            ("require", [path, version, "", ..], _) => self.requirements.push(names.number(path, version)),
            (_, _, None) | ("retract" | "toolchain", _, _) => {}
            ("exclude", [path, version, "", ..], Some(choices)) => {
                choices.excluded.insert(names.number(path, version));
            }
            ("replace", words, Some(choices)) => {
                let (left, right) = match words {
                    [path, "=>", right @ ..] => ((*path).to_owned(), right),
                    [path, version, "=>", right @ ..] => (format!("{path} {version}"), right),
                    _ => fail("a replace that it does not know"),
                };
                choices.replaced.insert(left, right.join(" ").trim_end().to_owned());
            }
            _ => fail(&format!("a line that it does not know: {verb} {}", words.join(" "))),
        }
    }
}

fn read<'a>(names: &mut Names, mut choices: Option<&mut Choices>, bytes: &'a [u8]) -> ModFile<'a> {
    let text = str::from_utf8(bytes).unwrap_or_else(|_| fail("not UTF-8"));
    let mut file = ModFile { declared: "", go: (1, 16), requirements: Vec::new() };
    let mut block = None;
    for line in text.lines() {
        let code = line.find("//").map_or(line, |at| &line[..at]);
        let mut words = [""; 7];
        for (place, word) in words.iter_mut().zip(code.split_ascii_whitespace()) {
            *place = if matches!(word.as_bytes()[0], b'"' | b'`') { word.trim_matches(['"', '`']) } else { word };
        }
        match (block, &words) {
            (_, ["", ..]) => {}
            (Some(_), [")", ..]) => block = None,
            (None, [_, "(", ")", ..]) => {}
            (None, [verb, "(", ..]) => block = Some(*verb),
            (None, [verb, ..]) if verb.ends_with('(') => block = verb.strip_suffix('('),
            (Some(verb), words) => file.add(names, choices.as_deref_mut(), verb, words),
            (None, [verb, words @ ..]) => file.add(names, choices.as_deref_mut(), verb, words),
        }
    }
    file
}

fn escape(place: &mut String, text: &str) {
    if !text.bytes().any(|b| b.is_ascii_uppercase()) {
        return place.push_str(text);
    }
    for c in text.chars() {
        if c.is_ascii_uppercase() {
            place.push('!');
        }
        place.push(c.to_ascii_lowercase());
    }
}

// Reads a file into a buffer that grows where it must, and returns its part that has the file.
fn read_bytes<'a>(bytes: &'a mut Vec<u8>, place: &str) -> &'a [u8] {
    let mut file = File::open(place).unwrap_or_else(|_| fail(place));
    let mut length = 0;
    loop {
        if length == bytes.len() {
            bytes.resize((2 * length).max(1 << 12), 0);
        }
        match file.read(&mut bytes[length..]).unwrap_or_else(|_| fail(place)) {
            0 => return &bytes[..length],
            count => length += count,
        }
    }
}

// Where the files are: a proxy folder, and the folder of the main file, which those of replacements start from.
struct Places<'a> {
    proxy: &'a str,
    folder: &'a Path,
}

impl Places<'_> {
    fn write(&self, place: &mut String, path: &str, version: &str) {
        place.clear();
        place.push_str(self.proxy);
        place.push('/');
        escape(place, path);
        place.push_str("/@v/");
        escape(place, version);
        place.push_str(".mod");
    }

    fn write_replaced(&self, place: &mut String, right: &str) {
        match right.split_once(' ') {
            Some((path, version)) => self.write(place, path, version),
            None => *place = self.folder.join(right).join("go.mod").to_string_lossy().into_owned(),
        }
    }
}

// The requirements of each module whose file was read, by its number, and a call for each file that is opened.
fn load(
    main: &ModFile,
    choices: &Choices,
    names: &mut Names,
    places: &Places,
    mut opened: impl FnMut(&str),
) -> Vec<Vec<usize>> {
    let mut files: Vec<Option<(bool, Vec<usize>)>> = Vec::new();
    // at the top, and deeply
    let mut seen: Vec<[bool; 2]> = Vec::new();
    let mut queue: VecDeque<(usize, bool)> = VecDeque::new();
    let (mut place, mut bytes) = (String::new(), Vec::new());
    let mut reach = |queue: &mut VecDeque<_>, number: usize, deep: bool| {
        if seen.len() <= number {
            seen.resize(number + 1, [false; 2]);
        }
        if !seen[number][usize::from(deep)] {
            seen[number][usize::from(deep)] = true;
            queue.push_back((number, deep));
        }
    };
    let deep = main.go < (1, 17);
    for number in &main.requirements {
        reach(&mut queue, *number, deep);
    }
    while let Some((number, deep)) = queue.pop_front() {
        if files.len() <= number {
            files.resize_with(number + 1, || None);
        }
        if files[number].is_none() {
            let module = &names.modules[number];
            let replacement = choices.replacement(module);
            match replacement {
                Some(right) => places.write_replaced(&mut place, right),
                None => places.write(&mut place, module.path(), module.version()),
            }
            opened(&place);
            let is_own = replacement.is_none();
            let mut file = read(names, None, read_bytes(&mut bytes, &place));
            if is_own && file.declared != names.modules[number].path() {
                fail(&place);
            }
            if !choices.excluded.is_empty() {
                file.requirements.retain(|it| !choices.excluded.contains(it));
            }
            files[number] = Some((file.go < (1, 17), file.requirements));
        }
        let Some((is_whole, requirements)) = &files[number] else { continue };
        if deep || *is_whole {
            for required in requirements {
                reach(&mut queue, *required, true);
            }
        }
    }
    files.into_iter().flatten().map(|(_, requirements)| requirements).collect()
}

// The build list of the main module, as `gomod list` prints it.
fn list(main: &ModFile, choices: &Choices, names: &Names, required: &[Vec<usize>]) -> String {
    let mut is_required = vec![false; names.modules.len()];
    for number in main.requirements.iter().chain(required.iter().flatten()) {
        is_required[*number] = true;
    }
    let mut greatest: HashMap<&str, (&Module, Option<Version>)> = HashMap::new();
    for module in names.modules.iter().zip(is_required).filter_map(|(it, is)| is.then_some(it)) {
        let version = Version::read(module.version());
        match greatest.entry(module.path()) {
            Entry::Vacant(entry) => _ = entry.insert((module, version)),
            Entry::Occupied(mut entry) => {
                let is_greater = match (&entry.get().1, &version) {
                    (Some(other), Some(version)) => other.order(version) == Ordering::Less,
                    _ => false,
                };
                if is_greater {
                    entry.insert((module, version));
                }
            }
        }
    }
    greatest.remove(main.declared);
    let mut rows: Vec<&Module> = greatest.into_values().map(|(module, _)| module).collect();
    rows.sort_unstable_by_key(|module| module.path());
    let mut text = format!("{}\n", main.declared);
    for module in rows {
        text.push_str(&module.text);
        if let Some(right) = choices.replacement(module) {
            text.extend([" => ", right]);
        }
        text.push('\n');
    }
    text
}

fn main() {
    let words: Vec<String> = env::args().collect();
    let mut bytes = Vec::new();
    if let [_, read, file] = words.as_slice() {
        if read == "--read" {
            let names = str::from_utf8(read_bytes(&mut bytes, file)).unwrap_or_else(|_| fail(file));
            let mut bytes = Vec::new();
            return names.lines().for_each(|place| _ = read_bytes(&mut bytes, place));
        }
    }
    let (main_file, proxy, is_names) = match words.as_slice() {
        [_, main, proxy] => (main, proxy, false),
        [_, main, proxy, names] if names == "--names" => (main, proxy, true),
        _ => fail("GO.MOD PROXY"),
    };
    let (mut names, mut choices) = (Names::default(), Choices::default());
    let mut main = read(&mut names, Some(&mut choices), read_bytes(&mut bytes, main_file));
    main.requirements.retain(|it| !choices.excluded.contains(it));
    let places = Places { proxy, folder: Path::new(main_file).parent().unwrap_or(Path::new(".")) };
    let mut opened = String::new();
    let required = load(&main, &choices, &mut names, &places, |place| {
        if is_names {
            opened.extend([place, "\n"]);
        }
    });
    print!("{}", if is_names { opened } else { list(&main, &choices, &names, &required) });
}
