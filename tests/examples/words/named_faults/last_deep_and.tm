shared s;
x = 1;
if x {
if x {
if x {
if x {
if x {
if x {
if x {
if x {
if x {
if x {
if x {
if x {
if x {
if x {
if x {
if x {
if x {
if x {
if x {
if x {
if x {
if x {
if x {
if x {
if x {
if x {
if x {
if x {
if x {
if x {
if x {
if x {
y = x;
y = x and s;
}}}}}}}}}}}}}}}}}}}}}}}}}}}}}}}}
