/*
 * Names of the versions in C. Each is compiled with a name of its own for VERSION, the prefix of all its symbols, so that several
 * stand in one program: where VERSION is gcc_plain, NAME(load) is gcc_plain_load.
 */
#ifndef NAME_H
#define NAME_H

#define JOINED(a, b) a##_##b
#define JOIN(a, b) JOINED(a, b)
#define NAME(name) JOIN(VERSION, name)

#endif
