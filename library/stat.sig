# What library/stat.um is held to: a function and a type at which it may be used, a line each.
weighted_mean : num<'a> list -> num<'b> list -> num<'b>
stat_joint : num<'a> list -> num<'b> list -> num<'a 'b>
variance : num<'a> list -> num<'a^2>
sample_variance : num<'a> list -> num<'a^2>
deviation_to : num<'a> -> num<'a> list -> num<'a>
sample_deviation_to : num<'a> -> num<'a> list -> num<'a>
stat_middle : num -> num<'a> list -> num<'a>
median : num<'a> list -> num<'a>
regression : num<'a> list -> num<'b> list -> Regression<'a, 'b>
predicted : Regression<'a, 'b> -> num<'a> -> num<'b>
residuals : Regression<'a, 'b> -> num<'a> list -> num<'b> list -> num<'b> list
correlation_squared : num<'a> list -> num<'b> list -> num
