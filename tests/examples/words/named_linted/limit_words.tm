shared a[300][300];
