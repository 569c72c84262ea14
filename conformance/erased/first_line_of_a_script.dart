#!/usr/bin/dart
int x;
