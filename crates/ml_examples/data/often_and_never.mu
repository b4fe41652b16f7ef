(nu X. mu Y. <>((p & X) | Y)) & (mu X. nu Y. []((!p | X) & Y))
