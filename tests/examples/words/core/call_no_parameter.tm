shared total;
fn here() = total + me;
x = here() * here();
