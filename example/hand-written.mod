module  example.com/hello


go 1.21
require(
    example.com/a v1.0.0//indirect

  "example.com/b"   v1.2.0
)
