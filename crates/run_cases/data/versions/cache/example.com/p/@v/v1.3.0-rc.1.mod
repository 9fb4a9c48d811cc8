module example.com/p

retract [v1.0.0, v2.0.0]
