# What library/electricity.um is held to: a function and a type at which it may be used, a line each.
voltage_of : num<A> -> num<ohm> -> num<V>
current_of : num<V> -> num<ohm> -> num<A>
resistance_of : num<V> -> num<A> -> num<ohm>
electric_power : num<V> -> num<A> -> num<W>
heat_of_current : num<A> -> num<ohm> -> num<W>
electricity_inverses : num<'a> list -> num</'a>
in_series : num<'a> list -> num<'a>
in_parallel : num<'a> list -> num<'a>
divided_voltage : num<V> -> num<ohm> -> num<ohm> -> num<V>
wire_resistance : num<ohm m> -> num<m> -> num<m^2> -> num<ohm>
resistance_at : num<ohm> -> num</K> -> num<K> -> num<ohm>
charge_of : num<F> -> num<V> -> num<C>
capacitor_energy : num<F> -> num<V> -> num<J>
coil_energy : num<H> -> num<A> -> num<J>
charging_time : num<ohm> -> num<F> -> num<s>
transformed_voltage : num<V> -> num -> num -> num<V>
billed_energy : num<W> -> num<s> -> num<kWh>
in_series : num<H> list -> num<H>
in_parallel : num<ohm> list -> num<ohm>
in_parallel : num<F> list -> num<F>
