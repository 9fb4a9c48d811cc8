module example.com/hello

go 1.21

require (
	example.com/a v1.9.0
	example.com/b v1.0.0
	example.com/c v0.1.0
)

replace example.com/c => ./c
