nu X. X
