var shown = 'c', notShown = 'c', both = 'c';
