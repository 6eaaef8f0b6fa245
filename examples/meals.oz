/* A meal is a dish and a drink. Soup goes with water alone,
   and who has the fish may have cake behind it. */
proc {Script Meal}
   choice Meal=meal(soup water)
   [] choice Meal=meal(fish wine)
      [] Meal=meal(fish water cake)
      end
   end
end
