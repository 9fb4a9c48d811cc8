module example.com/p

retract [v1.1.0, v1.2.0] // published too early
