A G E F home & E G !home
