"""The small feed, which the program carries as well, and files of an analyst's own beside it, by their names.

T1 leaves A at 08:00 and arrives at B at 08:10, T2 leaves B at 08:15 and arrives at C at 08:30, on Mondays.
"""

FEED = {
    "stops.txt": "stop_id,stop_name\nA,Alpha\nB,Beta\nC,Gamma\n",
    "routes.txt": "route_id\nR1\nR2\n",
    "calendar.txt": "service_id,monday,tuesday,wednesday,thursday,friday,saturday,sunday,start_date,end_date\n"
    "MON,1,0,0,0,0,0,0,20260504,20260531\n",
    "trips.txt": "route_id,service_id,trip_id\nR1,MON,T1\nR2,MON,T2\n",
    "stop_times.txt": "trip_id,arrival_time,departure_time,stop_id,stop_sequence\n"
    "T1,08:00:00,08:00:00,A,1\nT1,08:10:00,08:10:00,B,2\nT2,08:15:00,08:15:00,B,1\nT2,08:30:00,08:30:00,C,2\n",
}

# a way from C to B on foot, opportunities at both, two origins, and two scenarios
OWN = {
    "walks.csv": "from_stop_id,to_stop_id,seconds\nC,B,120\n",
    "chances.csv": "stop_id,opportunities\nB,10\nC,5\n",
    "origins.csv": "stop_id\nC\nA\n",
    "cut.csv": "action,id,seconds\nremove_route,R2,\n",
    "late.csv": "action,id,seconds\nshift_trip,T1,300\n",
}
