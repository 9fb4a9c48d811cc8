module example.com/hello

go 1.16

require (
	example.com/old v2.0.0+incompatible
	rsc.io/quote v1.5.2
	rsc.io/sampler v1.3.1 // indirect
)

replace (
	golang.org/x/text => ./text
	rsc.io/sampler v1.3.1 => rsc.io/sampler v1.3.0
)
