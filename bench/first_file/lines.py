"""The lines that first_file.sh gives to the program."""
import sys
with open(sys.argv[1], "w") as out:
    out.write("at 100\n")
    for i in range(4096):
        out.write(f"register - admin says may(user{i},#1,write) from 0 to 1000000\n")
    for i in range(4096):
        out.write(f"verify user{i} #1 write {i + 1} saysR(claim(0,init(1)))\n")
    for i in range(8000):
        if i % 1000 == 0:
            out.write(f"as user{i % 4096}\n")
            issue = i % 4096 + 1
        out.write(f"do create #1 file{i} @{issue}\n")
