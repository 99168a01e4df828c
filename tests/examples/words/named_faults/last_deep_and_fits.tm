shared s;
x = 1;
if x {
if x {
if x {
if x {
if x {
if x {
if x {
if x {
if x {
if x {
if x {
if x {
if x {
if x {
if x {
if x {
if x {
if x {
if x {
if x {
if x {
if x {
if x {
if x {
if x {
if x {
if x {
if x {
if x {
if x {
if x {
y = x and s;
if x and s { }
}}}}}}}}}}}}}}}}}}}}}}}}}}}}}}}
