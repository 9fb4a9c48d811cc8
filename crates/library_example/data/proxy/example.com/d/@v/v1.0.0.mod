module example.com/d

go 1.21
