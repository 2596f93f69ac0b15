# What library/list.um is held to: a function and a type at which it may be used, a line each.
sum : num<'a> list -> num<'a>
length : num<'a> list -> num
mean : num<'a> list -> num<'a>
append : num<'a> list -> num<'a> list -> num<'a> list
list_reverse : num<'a> list -> num<'a> list -> num<'a> list
reverse : num<'a> list -> num<'a> list
take : num -> num<'a> list -> num<'a> list
drop : num -> num<'a> list -> num<'a> list
nth : num -> num<'a> list -> num<'a>
range : num<'a> -> num<'a> -> num<'a> -> num<'a> list
list_minimum : num<'a> -> num<'a> list -> num<'a>
minimum : num<'a> list -> num<'a>
list_maximum : num<'a> -> num<'a> list -> num<'a>
maximum : num<'a> list -> num<'a>
list_merge : num<'a> list -> num<'a> list -> num<'a> list
list_singles : num<'a> list -> num<'a> list list
list_merge_pairs : num<'a> list list -> num<'a> list list
list_merge_all : num<'a> list list -> num<'a> list
sorted : num<'a> list -> num<'a> list
dot : num<'a> list -> num<'b> list -> num<'a 'b>
list_running_sums : num<'a> -> num<'a> list -> num<'a> list
running_sums : num<'a> list -> num<'a> list
scaled : num<'a> -> num<'b> list -> num<'a 'b> list
shifted : num<'a> -> num<'a> list -> num<'a> list
sums : num<'a> list -> num<'a> list -> num<'a> list
rounded : num<'a> -> num<'a> list -> num<'a> list
