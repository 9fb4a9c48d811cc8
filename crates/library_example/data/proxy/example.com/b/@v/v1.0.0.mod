module example.com/b

go 1.21

require example.com/a v1.10.0
