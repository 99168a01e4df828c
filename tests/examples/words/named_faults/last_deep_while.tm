shared s;
x = 1;
if x {
if x {
if x {
if x {
if x {
if x {
if x {
if x {
if x {
if x {
if x {
if x {
if x {
if x {
if x {
if x {
if x {
if x {
if x {
if x {
if x {
if x {
if x {
if x {
if x {
if x {
if x {
if x {
if x {
if x {
while x and s { }
if x {
while x and s { }
}
}}}}}}}}}}}}}}}}}}}}}}}}}}}}}}
