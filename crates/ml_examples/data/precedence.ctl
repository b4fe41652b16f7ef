A(!open W unlocked) <-> !E(!unlocked U (open & !unlocked))
