mu X. X
