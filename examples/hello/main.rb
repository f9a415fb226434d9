puts 2 + 3
