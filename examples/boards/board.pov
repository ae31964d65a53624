// A board of 20 by 14 squares on a table, lit from one side. The camera stands aslant above it; examples/boards/hold.py has the same camera in numbers.
#version 3.7;
global_settings { assumed_gamma 1.0 }
camera {
  location <6, 15, -13>
  look_at <1, 0, 0.5>
  right x*4/3
  up y
  angle 52
}
light_source { <-18, 22, -6> color rgb <1.1, 1.1, 1.1> spotlight radius 12 falloff 50 tightness 2 point_at <2, 0, 0> }
light_source { <20, 30, -20> color rgb <0.35, 0.35, 0.35> shadowless }
plane { y, -0.02 pigment { color rgb 0.45 } finish { ambient 0.1 diffuse 0.6 } }
box {
  <-10, -0.01, -7>, <10, 0, 7>
  pigment { checker color rgb 0.04 color rgb 0.92 }
  finish { ambient 0.08 diffuse 0.85 }
}
