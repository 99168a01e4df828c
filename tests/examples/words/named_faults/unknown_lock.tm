lock mutex;
with mutx { }
