fn f(left, right) = lefft + right;
