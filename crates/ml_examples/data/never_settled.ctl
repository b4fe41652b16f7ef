A G A F p & E F E G !p
