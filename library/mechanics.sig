# What library/mechanics.um is held to: a function and a type at which it may be used, a line each.
kinetic_energy : num<kg> -> num<m/s> -> num<J>
potential_energy : num<kg> -> num<m> -> num<J>
weight : num<kg> -> num<N>
work : num<N> -> num<m> -> num<J>
power_of_force : num<N> -> num<m/s> -> num<W>
momentum : num<kg> -> num<m/s> -> num<N s>
place_after : num<m> -> num<m/s> -> num<m/s^2> -> num<s> -> num<m>
speed_after : num<m/s> -> num<m/s^2> -> num<s> -> num<m/s>
fall_time_to : num<s> -> num<m> -> num<s>
fall_speed_to : num<m/s> -> num<m> -> num<m/s>
centripetal_force : num<kg> -> num<m/s> -> num<m> -> num<N>
speed_together : num<kg> -> num<m/s> -> num<kg> -> num<m/s> -> num<m/s>
spring_force : num<N/m> -> num<m> -> num<N>
spring_energy : num<N/m> -> num<m> -> num<J>
spring_period_to : num<s> -> num<kg> -> num<N/m> -> num<s>
drag_force : num<kg/m^3> -> num -> num<m^2> -> num<m/s> -> num<N>
depth_pressure : num<kg/m^3> -> num<m> -> num<Pa>
rectangle_moment : num<m> -> num<m> -> num<m^4>
beam_deflection : num<N> -> num<m> -> num<Pa> -> num<m^4> -> num<m>
cantilever_deflection : num<N> -> num<m> -> num<Pa> -> num<m^4> -> num<m>
rod_stretch : num<N> -> num<m> -> num<Pa> -> num<m^2> -> num<m>
reynolds_number : num<kg/m^3> -> num<m/s> -> num<m> -> num<Pa s> -> num
