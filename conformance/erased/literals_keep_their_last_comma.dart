var l = [1, 2,]; var m = {'a': 1,};
