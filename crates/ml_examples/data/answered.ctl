A G(req -> A F ack) & E F req -> E F ack
