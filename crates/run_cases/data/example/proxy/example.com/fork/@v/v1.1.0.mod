module example.com/fork

go 1.21

require example.com/Upper v1.0.0-RC1
