# What library/chemistry.um is held to: a function and a type at which it may be used, a line each.
amount_of : num<'a> -> num<'a/mol> -> num<mol>
mass_of : num<mol> -> num<'a/mol> -> num<'a>
concentration : num<mol> -> num<'a> -> num<mol/'a>
molarity : num<'a> -> num<'a/mol> -> num<'b> -> num<mol/'b>
diluted : num<'a> -> num<'b> -> num<'b> -> num<'a>
dilution : num<'a> -> num<'a> -> num<'b> -> num<'b>
mixed : num<'a> -> num<'b> -> num<'a> -> num<'b> -> num<'a>
titrated : num -> num<'a> -> num<'b> -> num<'b> -> num<'a>
mass_fraction : num<'a> -> num<'a> -> num
reaction_yield : num<'a> -> num<'a> -> num
chemistry_gas_constant : num<J/mol K>
gas_pressure : num<mol> -> num<K> -> num<m^3> -> num<Pa>
gas_volume : num<mol> -> num<K> -> num<Pa> -> num<m^3>
gas_amount : num<Pa> -> num<m^3> -> num<K> -> num<mol>
heat : num<kg> -> num<J/kg K> -> num<K> -> num<J>
electrolysed : num<A> -> num<s> -> num<kg/mol> -> num -> num<kg>
concentration : num<mol> -> num<L> -> num<mol/L>
concentration : num<mol> -> num<m^3> -> num<mol/m^3>
molarity : num<g> -> num<g/mol> -> num<L> -> num<mol/L>
titrated : num -> num<mol/L> -> num<L> -> num<L> -> num<mol/L>
