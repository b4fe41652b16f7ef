A G(call -> A F open) & A G !(open & moving) & E F(call & moving)
