nodes 2;
}
