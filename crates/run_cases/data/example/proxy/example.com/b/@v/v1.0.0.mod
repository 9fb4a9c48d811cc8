module example.com/b

require (
	example.com/a v1.0.0
	example.com/c v1.9.0
)
