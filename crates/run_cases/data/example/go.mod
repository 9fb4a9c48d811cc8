module example.com/m

go 1.21

require (
	example.com/a v1.0.0
	example.com/b v1.0.0
	example.com/local v0.0.0
)

replace example.com/local => ./local

replace example.com/c v1.9.0 => example.com/fork v1.1.0

exclude example.com/d v1.0.0
