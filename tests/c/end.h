
    return 0;
}
