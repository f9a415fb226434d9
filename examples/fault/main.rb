puts "not printed"

def twice(x)
  x + x

