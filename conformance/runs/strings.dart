main() { print('a  b'); print(''); print('!"#%&()*+,-./:;<=>?@[]^_`{|}~ main() print +'); }
