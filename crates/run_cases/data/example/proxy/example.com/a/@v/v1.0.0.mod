module example.com/a

go 1.17

require (
	example.com/c v1.8.0
	example.com/d v1.0.0
	example.com/far v1.2.0
)
