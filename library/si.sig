# What library/si.um is held to: a function and a type at which it may be used, a line each.
min_to_s : num<min> -> num<s>
s_to_min : num<s> -> num<min>
h_to_s : num<h> -> num<s>
s_to_h : num<s> -> num<h>
d_to_s : num<d> -> num<s>
s_to_d : num<s> -> num<d>
km_to_m : num<km> -> num<m>
m_to_km : num<m> -> num<km>
inch_to_m : num<inch> -> num<m>
m_to_inch : num<m> -> num<inch>
ft_to_m : num<ft> -> num<m>
m_to_ft : num<m> -> num<ft>
yd_to_m : num<yd> -> num<m>
m_to_yd : num<m> -> num<yd>
mi_to_m : num<mi> -> num<m>
m_to_mi : num<m> -> num<mi>
g_to_kg : num<g> -> num<kg>
kg_to_g : num<kg> -> num<g>
t_to_kg : num<t> -> num<kg>
kg_to_t : num<kg> -> num<t>
lb_to_kg : num<lb> -> num<kg>
kg_to_lb : num<kg> -> num<lb>
oz_to_kg : num<oz> -> num<kg>
kg_to_oz : num<kg> -> num<oz>
L_to_m3 : num<L> -> num<m^3>
m3_to_L : num<m^3> -> num<L>
gal_us_to_m3 : num<gal_us> -> num<m^3>
m3_to_gal_us : num<m^3> -> num<gal_us>
gal_imp_to_m3 : num<gal_imp> -> num<m^3>
m3_to_gal_imp : num<m^3> -> num<gal_imp>
km_per_h_to_m_per_s : num<km/h> -> num<m/s>
m_per_s_to_km_per_h : num<m/s> -> num<km/h>
kn_to_m_per_s : num<kn> -> num<m/s>
m_per_s_to_kn : num<m/s> -> num<kn>
kWh_to_J : num<kWh> -> num<J>
J_to_kWh : num<J> -> num<kWh>
cal_to_J : num<cal> -> num<J>
J_to_cal : num<J> -> num<cal>
hp_to_W : num<hp> -> num<W>
W_to_hp : num<W> -> num<hp>
bar_to_Pa : num<bar> -> num<Pa>
Pa_to_bar : num<Pa> -> num<bar>
atm_to_Pa : num<atm> -> num<Pa>
Pa_to_atm : num<Pa> -> num<atm>
mmHg_to_Pa : num<mmHg> -> num<Pa>
Pa_to_mmHg : num<Pa> -> num<mmHg>
arcmin_to_deg : num<arcmin> -> num<deg>
deg_to_arcmin : num<deg> -> num<arcmin>
Celsius_to_K : num<Celsius> -> num<K>
K_to_Celsius : num<K> -> num<Celsius>
Celsius_to_Fahrenheit : num<Celsius> -> num<Fahrenheit>
Fahrenheit_to_Celsius : num<Fahrenheit> -> num<Celsius>
Celsius_difference : num<Celsius> -> num<Celsius> -> num<degC>
Celsius_plus : num<Celsius> -> num<degC> -> num<Celsius>
degF_to_degC : num<degF> -> num<degC>
degC_to_degF : num<degC> -> num<degF>
speed_of_light : num<m/s>
standard_gravity : num<m/s^2>
caesium_frequency : num<Hz>
luminous_efficacy : num<lm/W>
gas_constant : num<J/mol K>
faraday_constant : num<C/mol>
standard_atmosphere : num<Pa>
deca : num
hecto : num
kilo : num
mega : num
giga : num
tera : num
peta : num
exa : num
deci : num
centi : num
milli : num
micro : num
nano : num
pico : num
femto : num
atto : num
deg_to_rad : num<deg> -> num<rad>
rad_to_deg : num<rad> -> num<deg>
