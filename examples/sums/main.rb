first = 20
second = first + first - 2

puts "first and second"
puts first
puts second
first = second - first
puts first + second + 4
