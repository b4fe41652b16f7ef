mu X. p | !<>X
