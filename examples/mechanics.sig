# What examples/mechanics.um is held to: a function and a type at which it may be used, a line each.
square : num<'x> -> num<'x^2>
ratio : num<'x> -> num<'x> -> num
total : num<'x> list -> num<'x>
centre : num<m> list -> num<kg> list -> num<m>
centre : num<'x> list -> num list -> num<'x>
kinetic : num<kg> -> num<m/s> -> num<J>
work : num<N> -> num<m> -> num<J>
move : Body<'x> -> num<s> -> Body<'x>
