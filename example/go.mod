module example.com/hello

go 1.16

require (
	rsc.io/quote v1.5.2
	rsc.io/sampler v1.3.1 // indirect
)
