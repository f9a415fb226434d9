first = 2
second = first + 3

puts "kept"
puts second
