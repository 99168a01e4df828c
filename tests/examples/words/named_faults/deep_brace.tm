nodes 1;
x = 1;
if 1 { if 1 { if 1 { if 1 { if 1 { if 1 { if 1 { if 1 { if 1 { if 1 { if 1 { if 1 { if 1 { if 1 { if 1 { if 1 { if 1 { if 1 { if 1 { if 1 { if 1 { if 1 { if 1 { if 1 { if 1 { if 1 { if 1 { if 1 { if 1 { if 1 { if 1 { if 1 { if 1 { }}}}}}}}}}}}}}}}}}}}}}}}}}}}}}}}}
