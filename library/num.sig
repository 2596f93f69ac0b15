# What library/num.um is held to: a function and a type at which it may be used, a line each.
pi : num
abs : num<'a> -> num<'a>
sign : num<'a> -> num
min : num<'a> -> num<'a> -> num<'a>
max : num<'a> -> num<'a> -> num<'a>
clamp : num<'a> -> num<'a> -> num<'a> -> num<'a>
num_below : num<'a> -> num<'a> -> num<'a>
floor_to : num<'a> -> num<'a> -> num<'a>
ceil_to : num<'a> -> num<'a> -> num<'a>
truncate_to : num<'a> -> num<'a> -> num<'a>
floor : num -> num
ceil : num -> num
truncate : num -> num
is_whole : num -> bool
num_nearest : num<'a> -> num<'a> -> num<'a>
round_to : num<'a> -> num<'a> -> num<'a>
num_nearest_up : num<'a> -> num<'a> -> num<'a>
round_away_to : num<'a> -> num<'a> -> num<'a>
num_root_below : num<'a> -> num<'a^2> -> num<'a>
sqrt_to : num<'a> -> num<'a^2> -> num<'a>
num_power : num -> num -> num -> num -> Num_power
pow_to : num -> num -> num -> num
div_rem : num<'a> -> num<'a> -> Num_division<'a>
interpolate : num<'a> -> num<'b> -> num<'a> -> num<'b> -> num<'a> -> num<'b>
interpolate_in : num<'a> list -> num<'b> list -> num<'a> -> num<'b>
