largest = 9223372036854775807
puts "the largest Integer is"
puts largest
puts largest + 1
puts "not reached"
