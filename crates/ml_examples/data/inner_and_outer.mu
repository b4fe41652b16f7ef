mu X. nu Y. (X & Y) | []Y
