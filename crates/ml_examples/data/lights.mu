(red | yellow | green) & !(red & green) & !(yellow & green)
& (stop <-> red & !yellow) & (go <-> green) & !stop & !go
