# What library/money.um is held to: a function and a type at which it may be used, a line each.
in_coins : num<'a> -> num<'a> -> num<'a>
in_coins_away : num<'a> -> num<'a> -> num<'a>
vat : num<'a> -> num -> num<'a> -> num<'a>
with_vat : num<'a> -> num -> num<'a> -> num<'a>
without_vat : num<'a> -> num -> num<'a> -> num<'a>
discounted : num<'a> -> num -> num<'a> -> num<'a>
exchanged : num<'a> -> num<'b> -> num<'a/'b> -> num<'a>
money_shares : num<'a> -> num -> num<'a> -> num<'a> list
shares : num<'a> -> num -> num<'a> -> num<'a> list
simple_interest : num</'a> -> num<'a> -> num<'b> -> num<'b>
compounded : num<'a> -> num -> num -> num<'a> -> num<'a>
money_annuity_factor : num -> num -> num -> num
annuity : num<'a> -> num -> num -> num<'a> -> num<'a>
money_instalments : num<'a> -> num -> num<'a> -> num -> num -> num<'a> -> Instalment<'a> list
amortisation : num<'a> -> num -> num<'a> -> num -> num<'a> -> Instalment<'a> list
instalment : num -> Instalment<'a> list -> Instalment<'a>
total_interest : Instalment<'a> list -> num<'a>
exchanged : num<usd> -> num<usd/eur> -> num<eur> -> num<usd>
simple_interest : num</year> -> num<year> -> num<eur> -> num<eur>
annuity : num<jpy> -> num -> num -> num<jpy> -> num<jpy>
