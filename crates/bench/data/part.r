define unused 3
