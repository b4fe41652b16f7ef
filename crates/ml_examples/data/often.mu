nu X. mu Y. <>((p & X) | Y)
